SET SCALE 6 ROUNDING HALF_UP;
INPUT "x" ("area" TEXT, "moment" PERIOD, "amount" INTEGER) KEY ("area", "moment");
CREATE TABLE "R" AS
  SELECT "a"."area" AS "area", PERIOD_SHIFT("a"."moment", -2) AS "moment", "a"."amount" AS "amount"
  FROM "x" AS "a";
EXPORT "R" ORDER BY "area", "moment";
