SET SCALE 2 ROUNDING HALF_UP; INPUT "T" ("a" INTEGER, "b" INTEGER) KEY ("a");
CREATE TABLE "U" AS SELECT "t"."b" AS "b", 1 AS "c;" FROM "T" AS "t" UNION ALL SELECT "t"."b" AS "b", 1 AS "c;" FROM "T" AS "t";
CREATE TABLE "V" AS SELECT "t"."a" AS "a", ';' AS """;" FROM "T" AS "t" INNER JOIN "T" AS "s" ON "t"."b" = "s"."b";
EXPORT "U" ORDER BY "c;"; EXPORT "V" ORDER BY "a";
