SET SCALE 2 ROUNDING HALF_UP;
INPUT "hotels" ("Hotel" TEXT, "Region" TEXT, "Beds" INTEGER) KEY ("Hotel");
INPUT "stays" ("Hotel" TEXT, "Month" PERIOD, "Nights" INTEGER) KEY ("Hotel", "Month");
CREATE TABLE "by_region" AS
  SELECT "h"."Region" AS "Region", "s"."Month" AS "Month", COUNT(*) AS "Hotels",
    SUM("s"."Nights") AS "Nights", SUM("s"."Nights") / SUM("h"."Beds") AS "Nights per bed"
  FROM "stays" AS "s"
  INNER JOIN "hotels" AS "h" ON "h"."Hotel" = "s"."Hotel"
  WHERE "h"."Beds" > 10 AND "s"."Nights" IS NOT NULL
  GROUP BY "h"."Region", "s"."Month"
  HAVING COUNT(*) > 1;
CREATE TABLE "silent" AS
  SELECT "h"."Hotel" AS "Hotel", "h"."Region" AS "Region"
  FROM "hotels" AS "h"
  WHERE NOT EXISTS (SELECT 1 FROM "stays" AS "s" WHERE "s"."Hotel" = "h"."Hotel");
EXPORT "by_region" ORDER BY "Month", "Region";
EXPORT "silent";
