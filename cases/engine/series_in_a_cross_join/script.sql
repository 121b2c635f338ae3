SET SCALE 2 ROUNDING HALF_UP;
INPUT "T" ("id" INTEGER, "g" TEXT, "p" PERIOD, "v" INTEGER) KEY ("id");
CREATE TABLE "U" AS
  SELECT "t"."id" AS "id", "s"."p" AS "p"
  FROM "T" AS "t"
  CROSS JOIN SERIES "T" ON "p" ALL AS "s";
EXPORT "U";
