SET SCALE 6 ROUNDING HALF_UP;
INPUT "pop" ("area" TEXT, "year" INTEGER, "people" INTEGER) KEY ("area", "year");
INPUT "size" ("area" TEXT, "km" INTEGER) KEY ("area");
INPUT "label" ("year" INTEGER, "text" TEXT) KEY ("year");
CREATE TABLE "R" AS
  SELECT "a$0"."area" AS "area", "a$0"."year" AS "year", "a$0"."people" AS "people",
    "a$1"."km" AS "km", "a$2"."text" AS "text"
  FROM "pop" AS "a$0"
  INNER JOIN "size" AS "a$1" ON "a$1"."area" = "a$0"."area"
  INNER JOIN "label" AS "a$2" ON "a$2"."year" = "a$0"."year";
EXPORT "R" ORDER BY "area", "year";
