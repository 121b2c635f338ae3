SET SCALE 6 ROUNDING HALF_UP;
INPUT "x" ("k" TEXT, "j" INTEGER, "u" INTEGER) KEY ("k", "j");
CREATE TABLE "R" AS
  SELECT "a"."k" AS "k", "a"."j" AS "j",
    RATIO_TO_REPORT("a"."u") OVER (PARTITION BY "a"."k") AS "u"
  FROM "x" AS "a";
EXPORT "R" ORDER BY "k", "j";
