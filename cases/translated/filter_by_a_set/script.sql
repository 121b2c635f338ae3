SET SCALE 6 ROUNDING HALF_UP;
INPUT "DS_1" ("Id_1" TEXT, "Me_1" INTEGER) KEY ("Id_1");
CREATE TABLE "DS_r" AS
  SELECT "a"."Id_1" AS "Id_1", "a"."Me_1" AS "Me_1"
  FROM "DS_1" AS "a"
  WHERE "a"."Me_1" IN (5);
EXPORT "DS_r" ORDER BY "Id_1";
