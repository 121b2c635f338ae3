SET SCALE 2 ROUNDING HALF_UP;
INPUT "B" ("id" INTEGER, "a" BOOLEAN, "b" BOOLEAN) KEY ("id");
CREATE TABLE "U" AS
  SELECT "b"."id" AS "id", "b"."a" = "b"."b" AS "a", "b"."a" < "b"."b" AS "b", "b"."a" >= "b"."b" AS "c"
  FROM "B" AS "b"
  WHERE "b"."id" < 7;
EXPORT "U";
