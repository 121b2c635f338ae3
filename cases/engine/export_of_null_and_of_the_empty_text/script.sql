SET SCALE 2 ROUNDING HALF_UP;
INPUT "T" ("id" INTEGER, "s" TEXT) KEY ("id");
CREATE TABLE "U" AS
  SELECT CASE WHEN "t"."id" = 1 THEN '' ELSE "t"."s" END AS "s", "t"."id" AS "id"
  FROM "T" AS "t";
EXPORT "U";
