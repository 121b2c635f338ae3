SET SCALE 6 ROUNDING HALF_UP;
INPUT "DS_1" ("Id_1" TEXT, "Me_1" INTEGER) KEY ("Id_1");
CREATE TABLE "DS_r" AS
  SELECT "a"."Id_1" AS "Id_1", "a"."Me_1" AS "Me_1", 1.5 AS "n", 2 AS "i", 'x"y' AS "s",
    TRUE AS "b", DATE '2020-01-31' AS "d", PERIOD '2020-M02' AS "p"
  FROM "DS_1" AS "a";
EXPORT "DS_r" ORDER BY "Id_1";
