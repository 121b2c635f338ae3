SET SCALE 6 ROUNDING HALF_UP;
INPUT "x" ("k" TEXT, "j" INTEGER, "u" INTEGER) KEY ("k", "j");
CREATE TABLE "R" AS
  SELECT "a"."k" AS "k", "a"."j" AS "j", "a"."u" AS "u",
    SUM("a"."u") OVER (PARTITION BY "a"."k" ORDER BY "a"."j" ROWS BETWEEN UNBOUNDED PRECEDING AND CURRENT ROW) AS "t",
    RANK() OVER (ORDER BY "a"."u" DESC) AS "p",
    LAG("a"."u", 1, NULL) OVER (ORDER BY "a"."u", "a"."k", "a"."j") AS "l"
  FROM "x" AS "a";
EXPORT "R" ORDER BY "k", "j";
