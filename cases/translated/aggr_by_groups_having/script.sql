SET SCALE 6 ROUNDING HALF_UP;
INPUT "x" ("k" TEXT, "j" INTEGER, "u" INTEGER) KEY ("k", "j");
CREATE TABLE "R" AS
  SELECT "a"."k" AS "k", SUM("a"."u") AS "s", COUNT("a"."u") AS "n"
  FROM "x" AS "a"
  GROUP BY "a"."k"
  HAVING AVG("a"."u") > 1.5;
EXPORT "R" ORDER BY "k";
