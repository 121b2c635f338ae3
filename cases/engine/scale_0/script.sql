SET SCALE 0 ROUNDING HALF_UP;
INPUT "S" ("i" INTEGER) KEY ("i");
CREATE TABLE "U" AS
  SELECT "s"."i" / 2 AS "a", "s"."i" * 0.4 AS "b", 2.5 AS "c", "s"."i" * "s"."i" AS "d"
  FROM "S" AS "s";
EXPORT "U";
