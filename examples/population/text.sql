SET SCALE 6 ROUNDING HALF_UP;
INPUT "population" ("Region" TEXT, "Year" TEXT, "Inhabitants" INTEGER, "Status" TEXT) KEY ("Region",
    "Year");
CREATE TABLE "populous" AS
  SELECT "a"."Region" AS "Region", "a"."Year" AS "Year", "a"."Inhabitants" AS "Inhabitants",
    "a"."Status" AS "Status"
  FROM "population" AS "a"
  WHERE "a"."Inhabitants" > 1000000;
EXPORT "populous" ORDER BY "Region", "Year";
