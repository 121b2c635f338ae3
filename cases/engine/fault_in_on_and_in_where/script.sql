SET SCALE 2 ROUNDING HALF_UP;
INPUT "T" ("id" INTEGER, "k" INTEGER, "v" INTEGER) KEY ("id");
INPUT "S" ("id" INTEGER, "k" INTEGER) KEY ("id");
CREATE TABLE "U" AS
  SELECT "t"."id" AS "x"
  FROM "T" AS "t"
  CROSS JOIN "S" AS "r"
  LEFT JOIN "S" AS "s" ON "t"."v" * "t"."v" = "s"."k"
  WHERE 1 / "t"."k" = 1;
EXPORT "U";
