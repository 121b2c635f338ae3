SET SCALE 6 ROUNDING HALF_UP;
INPUT "x" ("k" TEXT, "j" INTEGER, "u" INTEGER) KEY ("k", "j");
CREATE TABLE "R" AS
  SELECT "a"."k" AS "k", "a"."j" AS "j", MEDIAN("a"."u") AS "s", MAX("a"."u") AS "t"
  FROM "x" AS "a"
  GROUP BY "a"."k", "a"."j";
EXPORT "R" ORDER BY "k", "j";
