SET SCALE 2 ROUNDING HALF_UP;
INPUT "T" ("id" INTEGER, "k" INTEGER, "v" INTEGER) KEY ("id");
INPUT "S" ("id" INTEGER, "k" INTEGER, "w" TEXT) KEY ("id");
INPUT "R" ("id" INTEGER, "k" INTEGER) KEY ("id");
CREATE TABLE "U" AS
  SELECT "t"."id" AS "a", "r"."id" AS "c"
  FROM "T" AS "t"
  CROSS JOIN "R" AS "r"
  WHERE EXISTS (SELECT 1 FROM "S" AS "x" WHERE "x"."id" = "t"."v");
EXPORT "U";
