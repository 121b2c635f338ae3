SET SCALE 6 ROUNDING HALF_UP;
INPUT "x" ("k" TEXT, "j" INTEGER, "u" INTEGER) KEY ("k", "j");
CREATE TABLE "R" AS
  SELECT "a"."k" AS "k", "a"."j" AS "j", "a"."u" AS "u",
    AVG("a"."u") OVER (PARTITION BY "a"."k" ORDER BY "a"."j" ROWS BETWEEN 2 PRECEDING AND CURRENT ROW) AS "m",
    "a"."u" + 1 AS "w"
  FROM "x" AS "a";
EXPORT "R" ORDER BY "k", "j";
