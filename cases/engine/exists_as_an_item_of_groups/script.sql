SET SCALE 2 ROUNDING HALF_UP;
INPUT "T" ("id" INTEGER, "k" INTEGER, "v" INTEGER) KEY ("id");
INPUT "S" ("id" INTEGER, "k" INTEGER, "v" INTEGER) KEY ("id");
CREATE TABLE "U" AS
  SELECT "t"."k" AS "k", COUNT(*) AS "n", EXISTS (SELECT 1 FROM "S" AS "s" WHERE "s"."k" = "t"."k") AS "e"
  FROM "T" AS "t"
  GROUP BY "t"."k";
EXPORT "U";
