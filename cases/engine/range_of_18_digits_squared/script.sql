SET SCALE 0 ROUNDING HALF_UP;
INPUT "T" ("i" INTEGER) KEY ("i");
CREATE TABLE "U" AS
  SELECT "t"."i" * "t"."i" AS "x"
  FROM "T" AS "t";
EXPORT "U";
