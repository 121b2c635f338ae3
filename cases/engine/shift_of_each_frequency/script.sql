SET SCALE 0 ROUNDING DOWN;
INPUT "T" ("k" INTEGER, "p" PERIOD) KEY ("k");
CREATE TABLE "U" AS
  SELECT "t"."k" AS "k", PERIOD_SHIFT("t"."p", 0) AS "c0", PERIOD_SHIFT("t"."p", 1) AS "c1", PERIOD_SHIFT("t"."p", -1) AS "c2", PERIOD_SHIFT("t"."p", 5) AS "c3", PERIOD_SHIFT("t"."p", -13) AS "c4", PERIOD_SHIFT("t"."p", 120) AS "c5"
  FROM "T" AS "t";
EXPORT "U" ORDER BY "k";
