SET SCALE 2 ROUNDING HALF_UP;
INPUT "N" ("id" INTEGER, "i" INTEGER, "j" INTEGER, "n" NUMBER, "m" NUMBER) KEY ("id");
CREATE TABLE "U" AS
  SELECT "n"."id" AS "id", COALESCE("n"."i", "n"."j") AS "a", COALESCE("n"."i", 0.5) AS "b", COALESCE(NULL, "n"."m") AS "c", COALESCE("n"."i", NULL) AS "d"
  FROM "N" AS "n";
EXPORT "U";
