SET SCALE 2 ROUNDING HALF_UP;
INPUT "N" ("id" INTEGER, "i" INTEGER, "j" INTEGER, "n" NUMBER, "m" NUMBER) KEY ("id");
CREATE TABLE "U" AS
  SELECT "n"."id" AS "id", ABS("n"."i") AS "a", ABS("n"."m") AS "b", FLOOR("n"."n") AS "c", CEIL("n"."n") AS "d", FLOOR("n"."i") AS "e", CEIL("n"."m") AS "f"
  FROM "N" AS "n";
EXPORT "U";
