SET SCALE 2 ROUNDING HALF_UP;
INPUT "T" ("id" INTEGER, "k" INTEGER, "v" INTEGER) KEY ("id");
CREATE TABLE "U" AS
  SELECT "t"."id" AS "a", "s"."id" AS "b"
  FROM "T" AS "t"
  INNER JOIN "T" AS "s" ON CASE WHEN "t"."v" = 5 THEN FALSE ELSE 10 / ("t"."v" - 5) = "s"."v" END;
EXPORT "U";
