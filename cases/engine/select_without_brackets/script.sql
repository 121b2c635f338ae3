SET SCALE 2 ROUNDING HALF_UP;
INPUT "T" ("id" INTEGER, "k" INTEGER, "v" INTEGER) KEY ("id");
CREATE TABLE "U" AS
  SELECT 2 + 3 * 4 - 10 / 5 AS "a", -2 * 3 AS "b", 2 - 3 - 4 AS "c", 12 / 2 / 3 AS "d", NOT TRUE OR TRUE AS "e", NOT TRUE = TRUE AS "f"
  FROM "T" AS "t"
  WHERE "t"."id" = 1;
EXPORT "U";
