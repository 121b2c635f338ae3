SET SCALE 2 ROUNDING HALF_UP;
INPUT "T" ("id" INTEGER, "k" INTEGER, "v" INTEGER) KEY ("id");
CREATE TABLE "U" AS
  SELECT "t"."id" AS "id"
  FROM "T" AS "t"
  WHERE "t"."id" > 2;
INPUT "S" ("id" INTEGER) KEY ("id");
CREATE TABLE "V" AS
  SELECT "s"."id" AS "id"
  FROM "S" AS "s"
  WHERE NOT EXISTS (SELECT 1 FROM "U" AS "u" WHERE "u"."id" = "s"."id");
EXPORT "V";
EXPORT "U";
