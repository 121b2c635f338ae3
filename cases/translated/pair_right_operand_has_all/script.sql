SET SCALE 6 ROUNDING HALF_UP;
INPUT "DS_1" ("Id_1" TEXT, "Me_1" INTEGER) KEY ("Id_1");
INPUT "DS_2" ("Id_1" TEXT, "Id_2" INTEGER, "Me_1" INTEGER) KEY ("Id_1", "Id_2");
CREATE TABLE "DS_r" AS
  SELECT "a"."Id_1" AS "Id_1", "a"."Id_2" AS "Id_2", "b"."Me_1" - "a"."Me_1" AS "Me_1"
  FROM "DS_2" AS "a"
  INNER JOIN "DS_1" AS "b" ON "b"."Id_1" = "a"."Id_1";
EXPORT "DS_r" ORDER BY "Id_1", "Id_2";
