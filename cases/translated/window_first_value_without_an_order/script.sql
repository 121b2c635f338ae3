SET SCALE 6 ROUNDING HALF_UP;
INPUT "x" ("k" TEXT, "j" INTEGER, "u" INTEGER) KEY ("k", "j");
CREATE TABLE "R" AS
  SELECT "a"."k" AS "k", "a"."j" AS "j",
    FIRST_VALUE("a"."u") OVER (ORDER BY "a"."k", "a"."j" ROWS BETWEEN CURRENT ROW AND UNBOUNDED FOLLOWING) AS "u"
  FROM "x" AS "a";
EXPORT "R" ORDER BY "k", "j";
