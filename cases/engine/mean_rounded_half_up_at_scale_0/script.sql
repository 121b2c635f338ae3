SET SCALE 0 ROUNDING HALF_UP;
INPUT "X" ("id" INTEGER, "g" TEXT, "v" NUMBER) KEY ("id");
CREATE TABLE "U" AS
  SELECT "x"."g" AS "g", AVG("x"."v") AS "a", MEDIAN("x"."v") AS "m"
  FROM "X" AS "x"
  GROUP BY "x"."g";
EXPORT "U";
