SET SCALE 2 ROUNDING HALF_UP;
INPUT "B" ("id" INTEGER, "a" BOOLEAN, "b" BOOLEAN) KEY ("id");
CREATE TABLE "U" AS
  SELECT "b"."id" AS "id", "b"."a" IS NULL AS "a", "b"."a" IS NOT NULL AS "b", NOT "b"."a" IS NULL AS "c", NULL IS NULL AS "d"
  FROM "B" AS "b"
  WHERE "b"."id" > 5;
EXPORT "U";
