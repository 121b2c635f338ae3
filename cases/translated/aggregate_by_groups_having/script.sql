SET SCALE 6 ROUNDING HALF_UP;
INPUT "x" ("k" TEXT, "j" INTEGER, "u" INTEGER) KEY ("k", "j");
CREATE TABLE "R" AS
  SELECT "a"."k" AS "k", AVG("a"."u") AS "u"
  FROM "x" AS "a"
  GROUP BY "a"."k"
  HAVING "a"."k" <> 'b' AND MAX("a"."u") > 1;
EXPORT "R" ORDER BY "k";
