SET SCALE 2 ROUNDING HALF_UP;
INPUT "T" ("id" INTEGER, "i" INTEGER, "n" NUMBER, "s" TEXT) KEY ("id");
CREATE TABLE "U" AS
  SELECT "t"."i" AS "x"
  FROM "T" AS "t"
  UNION ALL
  SELECT 0.5 AS "x"
  FROM "T" AS "t"
  WHERE "t"."id" = 1;
CREATE TABLE "V" AS
  SELECT "u"."x" AS "x"
  FROM "U" AS "u"
  WHERE EXISTS (SELECT 1 FROM "T" AS "t" WHERE "t"."n" = "u"."x");
EXPORT "V";
