SET SCALE 0 ROUNDING DOWN;
INPUT "T" ("k" INTEGER, "p" PERIOD) KEY ("k");
CREATE TABLE "U" AS
  SELECT "t"."k" AS "k"
  FROM "T" AS "t"
  WHERE "t"."k" < 2 AND PERIOD_SHIFT("t"."p", 1) > "t"."p";
EXPORT "U";
