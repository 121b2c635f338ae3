SET SCALE 2 ROUNDING HALF_UP;
INPUT "T" ("id" INTEGER, "i" INTEGER, "n" NUMBER) KEY ("id");
CREATE TABLE "U" AS
  SELECT SUM("t"."i") AS "a", SUM("t"."n") AS "b", AVG("t"."i") AS "c", AVG("t"."n") AS "d", MEDIAN("t"."n") AS "e", MIN("t"."i") AS "f", MAX("t"."n") AS "g", COUNT(*) AS "h"
  FROM "T" AS "t";
EXPORT "U";
