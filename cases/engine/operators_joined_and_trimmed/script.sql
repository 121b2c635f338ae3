SET SCALE 2 ROUNDING HALF_UP;
INPUT "X" ("id" INTEGER, "a" TEXT, "b" TEXT) KEY ("id");
CREATE TABLE "U" AS
  SELECT "x"."id" AS "id", "x"."a" || "x"."b" AS "a", TRIM("x"."a") AS "b", LTRIM("x"."a") AS "c", RTRIM("x"."a") AS "d", "x"."a" || '' AS "e"
  FROM "X" AS "x";
EXPORT "U";
