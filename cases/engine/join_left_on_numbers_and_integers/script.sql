SET SCALE 2 ROUNDING HALF_UP;
INPUT "A" ("id" INTEGER, "x" INTEGER) KEY ("id");
INPUT "B" ("id" INTEGER, "x" NUMBER) KEY ("id");
CREATE TABLE "U" AS
  SELECT "a"."id" AS "a", "b"."id" AS "b"
  FROM "A" AS "a"
  LEFT JOIN "B" AS "b" ON "b"."x" = "a"."x";
EXPORT "U";
