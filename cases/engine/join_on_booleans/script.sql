SET SCALE 2 ROUNDING HALF_UP;
INPUT "A" ("id" INTEGER, "x" BOOLEAN) KEY ("id");
INPUT "B" ("id" INTEGER, "x" BOOLEAN) KEY ("id");
CREATE TABLE "U" AS
  SELECT "a"."id" AS "a", "b"."id" AS "b"
  FROM "A" AS "a"
  FULL JOIN "B" AS "b" ON "a"."x" = "b"."x";
EXPORT "U";
