SET SCALE 0 ROUNDING DOWN;
INPUT "T" ("k" INTEGER, "p" PERIOD) KEY ("k");
CREATE TABLE "U" AS
  SELECT "t"."k" AS "k", PERIOD_FREQ("t"."p") AS "f", PERIOD_FREQ("t"."p") || '!' AS "e"
  FROM "T" AS "t";
EXPORT "U" ORDER BY "k";
