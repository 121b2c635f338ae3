SET SCALE 2 ROUNDING HALF_UP;
INPUT "T" ("id" INTEGER, "a" TEXT, "b" INTEGER, "c" BOOLEAN, "v" INTEGER) KEY ("id");
CREATE TABLE "U" AS
  SELECT "s"."id" AS "i", COUNT(*) AS "n"
  FROM "T" AS "t"
  LEFT JOIN "T" AS "s" ON "t"."v" = "s"."b" * 10
  GROUP BY "s"."id";
EXPORT "U";
