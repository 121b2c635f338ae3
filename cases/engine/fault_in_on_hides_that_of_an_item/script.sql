SET SCALE 2 ROUNDING HALF_UP;
INPUT "T" ("id" INTEGER, "k" INTEGER, "v" INTEGER) KEY ("id");
INPUT "S" ("id" INTEGER, "k" INTEGER) KEY ("id");
CREATE TABLE "U" AS
  SELECT 1 / "t"."k" AS "x"
  FROM "T" AS "t"
  LEFT JOIN "S" AS "s" ON "t"."v" * "t"."v" = "s"."k";
EXPORT "U";
