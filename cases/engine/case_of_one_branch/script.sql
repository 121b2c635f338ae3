SET SCALE 2 ROUNDING HALF_UP;
INPUT "T" ("id" INTEGER, "k" INTEGER, "v" INTEGER) KEY ("id");
CREATE TABLE "U" AS
  SELECT "t"."id" AS "id", CASE WHEN "t"."v" > 5 THEN 'more' ELSE 'less' END AS "s"
  FROM "T" AS "t";
EXPORT "U";
