SET SCALE 6 ROUNDING HALF_UP;
INPUT "DS_1" ("Id_1" TEXT, "Id_2" INTEGER, "Id_3" INTEGER, "Id_4" BOOLEAN, "Me_1" INTEGER) KEY ("Id_1",
    "Id_2", "Id_3", "Id_4");
CREATE TABLE "DS_r" AS
  SELECT "a"."Id_2" AS "Id_2", "a"."Me_1" AS "Me_1"
  FROM "DS_1" AS "a"
  WHERE "a"."Id_3" = 2 AND "a"."Id_1" = 'x' AND "a"."Id_4" = TRUE;
EXPORT "DS_r" ORDER BY "Id_2";
