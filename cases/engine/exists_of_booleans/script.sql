SET SCALE 2 ROUNDING HALF_UP;
INPUT "A" ("id" INTEGER, "x" BOOLEAN) KEY ("id");
INPUT "B" ("id" INTEGER, "x" BOOLEAN) KEY ("id");
CREATE TABLE "U" AS
  SELECT "a"."id" AS "id", EXISTS (SELECT 1 FROM "B" AS "b" WHERE "b"."x" = "a"."x") AS "e"
  FROM "A" AS "a";
EXPORT "U";
