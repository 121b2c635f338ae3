SET SCALE 6 ROUNDING HALF_UP;
INPUT "DS_1" ("Id_1" TEXT, "Id_2" INTEGER, "Id_3" PERIOD, "Me_1" INTEGER) KEY ("Id_1", "Id_2",
    "Id_3");
CREATE TABLE "DS_r" AS
  SELECT "a"."Id_2" AS "Id_2", "a"."Id_3" AS "Id_3", "a"."Me_1" AS "Me_1"
  FROM "DS_1" AS "a"
  WHERE "a"."Id_1" = 'x';
EXPORT "DS_r" ORDER BY "Id_2", "Id_3";
