SET SCALE 2 ROUNDING HALF_UP;
INPUT "T" ("id" INTEGER, "k" INTEGER, "v" INTEGER) KEY ("id");
CREATE TABLE "a ""b"" $ c" AS
  SELECT "t"."id" AS "id"
  FROM "T" AS "t"
  WHERE "t"."id" > 2;
CREATE TABLE "U" AS
  SELECT "x"."id" AS "id"
  FROM "a ""b"" $ c" AS "x";
EXPORT "U";
