SET SCALE 2 ROUNDING HALF_UP;
INPUT "T" ("id" INTEGER, "k" INTEGER) KEY ("id");
INPUT "X" ("id" INTEGER, "x" NUMBER) KEY ("id");
CREATE TABLE "N" AS
  SELECT "t"."k" AS "n"
  FROM "T" AS "t"
  UNION ALL
  SELECT "x"."x" AS "n"
  FROM "X" AS "x";
CREATE TABLE "U" AS
  SELECT "n"."n" AS "n", COUNT(*) AS "c", EXISTS (SELECT 1 FROM "X" AS "x" WHERE "n"."n" = "x"."x") AS "e"
  FROM "N" AS "n"
  GROUP BY "n"."n"
  HAVING EXISTS (SELECT 1 FROM "N" AS "m" WHERE "m"."n" = "n"."n");
EXPORT "U";
