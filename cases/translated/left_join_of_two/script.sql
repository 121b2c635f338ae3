SET SCALE 6 ROUNDING HALF_UP;
INPUT "pop" ("area" TEXT, "year" INTEGER, "people" INTEGER) KEY ("area", "year");
INPUT "den" ("area" TEXT, "year" INTEGER, "rate" NUMBER) KEY ("area", "year");
CREATE TABLE "R" AS
  SELECT "a$0"."area" AS "area", "a$0"."year" AS "year", "a$0"."people" AS "people",
    "a$1"."rate" AS "rate"
  FROM "pop" AS "a$0"
  LEFT JOIN "den" AS "a$1" ON "a$1"."area" = "a$0"."area" AND "a$1"."year" = "a$0"."year";
EXPORT "R" ORDER BY "area", "year";
