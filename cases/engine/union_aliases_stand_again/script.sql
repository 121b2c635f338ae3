SET SCALE 2 ROUNDING HALF_UP;
INPUT "T" ("id" INTEGER, "i" INTEGER, "n" NUMBER, "s" TEXT) KEY ("id");
CREATE TABLE "U" AS
  SELECT "t"."i" AS "x"
  FROM "T" AS "t"
  WHERE "t"."id" = 1
  UNION ALL
  SELECT "s"."i" + "t"."i" AS "x"
  FROM "T" AS "s"
  INNER JOIN "T" AS "t" ON "s"."id" = "t"."id";
EXPORT "U";
