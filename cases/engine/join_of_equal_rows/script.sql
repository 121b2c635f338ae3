SET SCALE 2 ROUNDING HALF_UP;
INPUT "T" ("id" INTEGER, "k" INTEGER, "v" INTEGER) KEY ("id");
INPUT "S" ("id" INTEGER, "k" INTEGER, "w" TEXT) KEY ("id");
CREATE TABLE "V" AS
  SELECT "t"."v" AS "v"
  FROM "T" AS "t";
CREATE TABLE "U" AS
  SELECT "a"."v" AS "a", "b"."v" AS "b"
  FROM "V" AS "a"
  INNER JOIN "V" AS "b" ON "a"."v" = "b"."v";
EXPORT "U";
