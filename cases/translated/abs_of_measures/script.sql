SET SCALE 6 ROUNDING HALF_UP;
INPUT "DS_1" ("Id_1" TEXT, "Me_1" INTEGER, "Me_2" NUMBER, "note" TEXT) KEY ("Id_1");
CREATE TABLE "DS_r" AS
  SELECT "a"."Id_1" AS "Id_1", ABS("a"."Me_1") AS "Me_1", ABS("a"."Me_2") AS "Me_2"
  FROM "DS_1" AS "a";
EXPORT "DS_r" ORDER BY "Id_1";
