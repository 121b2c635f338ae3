SET SCALE 2 ROUNDING HALF_UP;
INPUT "T" ("id" INTEGER, "k" INTEGER, "v" INTEGER) KEY ("id");
CREATE TABLE "U" AS
  SELECT "t"."id" AS "id", "t"."v" + 1 AS "w"
  FROM "T" AS "t"
  WHERE "t"."v" IS NOT NULL;
CREATE TABLE "V" AS
  SELECT "u"."w" * 2 AS "x"
  FROM "U" AS "u"
  WHERE "u"."w" > 6;
EXPORT "V";
