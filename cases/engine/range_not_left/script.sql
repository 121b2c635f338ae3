SET SCALE 2 ROUNDING HALF_UP;
INPUT "R" ("i" INTEGER, "n" NUMBER) KEY ("i");
CREATE TABLE "U" AS
  SELECT "r"."i" + 0.5 AS "a", -"r"."n" AS "b", FLOOR("r"."n") AS "c", TRUNC("r"."n", 0) AS "d", "r"."i" * 1.0 AS "e", ABS(-"r"."i") AS "f", "r"."n" - "r"."i" AS "g", MOD("r"."i", 10) AS "h"
  FROM "R" AS "r";
EXPORT "U";
