SET SCALE 2 ROUNDING HALF_UP;
INPUT "T" ("id" INTEGER, "k" INTEGER, "v" INTEGER) KEY ("id");
CREATE TABLE "U" AS
  SELECT 1 AS "i", 2.50 AS "n", 'it''s' AS "s", TRUE AS "b", FALSE AS "c", DATE '2024-02-29' AS "d", PERIOD '2024-Q1' AS "p"
  FROM "T" AS "t"
  WHERE "t"."id" = 1;
EXPORT "U";
