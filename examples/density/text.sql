SET SCALE 6 ROUNDING HALF_UP;
INPUT "population" ("Region" TEXT, "Year" INTEGER, "Inhabitants" INTEGER) KEY ("Region", "Year");
INPUT "area" ("Region" TEXT, "Km2" NUMBER) KEY ("Region");
INPUT "region" ("Region" TEXT, "Name" TEXT) KEY ("Region");
CREATE TABLE "density$1" AS
  SELECT "a$0"."Region" AS "Region", "a$0"."Year" AS "Year", "a$0"."Inhabitants" AS "Inhabitants",
    "a$1"."Km2" AS "Km2", "a$2"."Name" AS "Name"
  FROM "population" AS "a$0"
  INNER JOIN "area" AS "a$1" ON "a$1"."Region" = "a$0"."Region"
  INNER JOIN "region" AS "a$2" ON "a$2"."Region" = "a$0"."Region"
  WHERE "a$1"."Km2" > 0;
CREATE TABLE "density$2" AS
  SELECT "a"."Region" AS "Region", "a"."Year" AS "Year", "a"."Inhabitants" AS "Inhabitants",
    "a"."Km2" AS "Km2", "a"."Name" AS "Name", "a"."Inhabitants" / "a"."Km2" AS "Density"
  FROM "density$1" AS "a";
CREATE TABLE "density" AS
  SELECT "a"."Region" AS "Region", "a"."Year" AS "Year", "a"."Name" AS "Name",
    "a"."Density" AS "Density"
  FROM "density$2" AS "a";
CREATE TABLE "known" AS
  SELECT "a$0"."Region" AS "Region", "a$0"."Year" AS "Year", "a$0"."Inhabitants" AS "Inhabitants",
    "a$1"."Km2" AS "Km2"
  FROM "population" AS "a$0"
  LEFT JOIN "area" AS "a$1" ON "a$1"."Region" = "a$0"."Region";
CREATE TABLE "no_area$1" AS
  SELECT "a"."Region" AS "Region", "a"."Year" AS "Year", "a"."Inhabitants" AS "Inhabitants",
    "a"."Km2" AS "Km2"
  FROM "known" AS "a"
  WHERE "a"."Km2" IS NULL;
CREATE TABLE "no_area" AS
  SELECT "a"."Region" AS "Region", "a"."Year" AS "Year", "a"."Inhabitants" AS "Inhabitants"
  FROM "no_area$1" AS "a";
EXPORT "density" ORDER BY "Region", "Year";
EXPORT "no_area" ORDER BY "Region", "Year";
