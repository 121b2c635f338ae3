SET SCALE 2 ROUNDING HALF_UP;
INPUT "T" ("id" INTEGER, "k" INTEGER, "v" INTEGER) KEY ("id");
INPUT "S" ("id" INTEGER, "k" INTEGER, "w" TEXT) KEY ("id");
CREATE TABLE "U" AS
  SELECT "t"."id" AS "a", "s"."id" AS "b"
  FROM "T" AS "t"
  INNER JOIN "S" AS "s" ON 1 / ("s"."id" - 5) < 5
  WHERE 100000000 * "t"."v" * 100000000 * "s"."id" * 1000 > 0;
EXPORT "U";
