SET SCALE 2 ROUNDING HALF_UP;
INPUT "T" ("id" INTEGER, "k" INTEGER, "v" INTEGER) KEY ("id");
INPUT "S" ("id" INTEGER, "k" INTEGER) KEY ("id");
CREATE TABLE "U" AS
  SELECT "t"."id" AS "x"
  FROM "T" AS "t"
  LEFT JOIN "S" AS "r" ON "t"."v" * "t"."v" = "r"."k"
  LEFT JOIN "S" AS "s" ON 1 / "t"."k" = "s"."k";
EXPORT "U";
