SET SCALE 6 ROUNDING HALF_UP;
INPUT "x" ("area" TEXT, "moment" PERIOD, "amount" INTEGER) KEY ("area", "moment");
CREATE TABLE "R$1" AS
  SELECT "a"."area" AS "area", "a"."moment" AS "moment"
  FROM SERIES "x" ON "moment" BY ("area") SINGLE AS "a";
CREATE TABLE "R" AS
  SELECT "a$0"."area" AS "area", "a$0"."moment" AS "moment", "a$1"."amount" AS "amount"
  FROM "R$1" AS "a$0"
  LEFT JOIN "x" AS "a$1" ON "a$1"."area" = "a$0"."area" AND "a$1"."moment" = "a$0"."moment";
EXPORT "R" ORDER BY "area", "moment";
