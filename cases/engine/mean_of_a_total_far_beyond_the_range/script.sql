SET SCALE 2 ROUNDING HALF_UP;
INPUT "T" ("id" INTEGER, "i" INTEGER, "n" NUMBER) KEY ("id");
CREATE TABLE "U" AS
  SELECT AVG("t"."i") AS "c", AVG("t"."n") AS "d", MEDIAN("t"."i") AS "e"
  FROM "T" AS "t"
  WHERE "t"."id" <= 1000;
EXPORT "U";
